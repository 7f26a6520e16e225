(module
  (type $none (func))
  (import "m" "called" (func $called (type $none)))
  (func $inner (type $none) (global.set $count (i32.const 1)))
  (func $start (type $none) (call $called) (call $inner))
  (global $count (mut i32) (i32.const 0))
  (start $start))
