(module
  (type $pair (func (param i32 i64)))
  (type $none (func))
  (tag $thrown (type $pair))
  (tag $exported (type $pair))
  (func $f (type $none) (throw $thrown (i32.const 1) (i64.const 2)))
  (export "t" (tag $exported))
  (export "f" (func $f)))
