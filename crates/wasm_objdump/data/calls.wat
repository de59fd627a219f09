;; Calls of functions with names of imports, of exports and of the custom section. Made by: wat2wasm --debug-names calls.wat
(module
  (import "env" "print" (func (param i32)))
  (import "env" "log" (func $log (param i32)))
  (func $helper (param i32)
    local.get 0
    call 0
    local.get 0
    call $log)
  (func (export "run")
    i32.const 1
    call $helper
    call 4)
  (func
    call 3))
