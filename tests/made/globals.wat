(module
  (global $unread i32 (i32.const 1))
  (global $dropped i64 (i64.const 3))
  (global $second (mut i32) (i32.add (i32.const 41) (i32.const 1)))
  (global $number (export "e") f64 (f64.const -0.5))
  (global $reference (export "r") funcref (ref.func $set))
  (func $set (export "set") (param i32)
    (global.set $second (local.get 0))))
