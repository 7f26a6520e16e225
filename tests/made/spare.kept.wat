(module
  (memory $spare 1)
  (func $run (data.drop $passive))
  (export "run" (func $run))
  (data $passive "passive"))
