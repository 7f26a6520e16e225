(module
  (memory $spare 1)
  (memory $unread 2)
  (func (export "run") (data.drop $passive))
  (data $passive "passive")
  (data $unnamed "unnamed"))
