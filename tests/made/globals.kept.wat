(module
  (global $second (mut i32) (i32.add (i32.const 41) (i32.const 1)))
  (global $number f64 (f64.const -0.5))
  (global $reference funcref (ref.func $set))
  (func $set (param i32)
    (global.set $second (local.get 0)))
  (export "e" (global $number))
  (export "r" (global $reference))
  (export "set" (func $set)))
