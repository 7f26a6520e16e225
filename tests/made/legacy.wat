(module
  (type $none (func))
  (type $unnamed (func (param f32)))
  (type $thrown (func (param i32)))
  (type $two (func (result i32 i64)))
  (tag $thrown (type $thrown))
  (tag $unnamed (type $unnamed))
  (func (export "catch") (type $none)
    try (result i32)
      i32.const 0
    catch $thrown
    end
    drop)
  (func (export "catch_all") (type $none)
    try (type $two)
      i32.const 1
      i64.const 2
    catch_all
      i32.const 3
      i64.const 4
    end
    drop
    drop)
  (func (export "rethrow") (type $none)
    try
      try
        i32.const 5
        throw $thrown
      delegate 0
    catch $thrown
      drop
      rethrow 0
    end)
  (func $unnamed (type $none)
    try
    catch $unnamed
      drop
    end))
