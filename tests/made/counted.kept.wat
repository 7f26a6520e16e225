(module
  (memory $memory 1)
  (func $run)
  (export "memory" (memory $memory))
  (export "run" (func $run))
  (data $active (i32.const 0) "active"))
