(module
  (type $pair (func (param i32 i64)))
  (type $other (func (param f32)))
  (tag $dropped (type $other))
  (tag $thrown (type $pair))
  (tag $exported (export "t") (type $pair))
  (func (export "f") (throw $thrown (i32.const 1) (i64.const 2))))
