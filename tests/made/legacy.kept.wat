(module
  (type $none (func))
  (type $thrown (func (param i32)))
  (type $two (func (result i32 i64)))
  (type $of_catch (func (param i32) (result i32)))
  (tag $thrown (type $thrown))
  (func $catch_all (type $none)
    try (type $two)
      i32.const 1
      i64.const 2
    catch_all
      i32.const 3
      i64.const 4
    end
    drop
    drop)
  (func $rethrow (type $none)
    try
      try
        i32.const 5
        throw $thrown
      delegate 0
    catch $thrown
      drop
      rethrow 0
    end)
  (func $catch (type $none)
    try (result i32)
      i32.const 0
    catch $thrown
    end
    drop)
  (export "catch" (func $catch))
  (export "catch_all" (func $catch_all))
  (export "rethrow" (func $rethrow)))
