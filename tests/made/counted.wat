(module
  (memory $memory (export "memory") 1)
  (func $dropped (data.drop $passive))
  (func (export "run"))
  (data $active (i32.const 0) "active")
  (data $passive "passive"))
