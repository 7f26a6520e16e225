(module
  (import "m" "base" (global $base i32))
  (memory $first 1)
  (memory $second 2)
  (func $run
    (memory.init $second $passive (i32.const 8) (i32.const 0) (i32.const 4))
    (data.drop $passive))
  (export "run" (func $run))
  (data $active (memory $first) (i32.const 16) "first")
  (data $passive "passive")
  (data $later (memory $second) (global.get $base) "second")
  (data $empty (memory $first) (i32.const 0) ""))
