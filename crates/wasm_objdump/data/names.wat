;; Names from exports and from the custom section. Made by: wat2wasm --debug-names names.wat
(module $sample
  (import "env" "print" (func (param i32)))
  (import "env" "memory" (memory 1))
  (table 1 funcref)
  (type (func (param i32 i32) (result i32)))
  (func $add (type 0)
    local.get 0
    local.get 1
    i32.add)
  (func (export "first") (export "last")
    i32.const 3
    i32.const 4
    i32.const 0
    call_indirect (type 0)
    drop)
  (func))
