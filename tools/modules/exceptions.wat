(module
  (import "env" "log" (func $log (param i32)))
  (tag $number (param i32))
  (tag $both (param i64 f64))
  (func $throws (param i32)
    local.get 0
    throw $number)
  (func $caught (export "caught") (param i32) (result i32)
    (try (result i32)
      (do
        (call $throws (local.get 0))
        (i32.const 0))
      (catch $number
        (call $log (i32.const -7)))
      (catch $both
        drop
        drop
        (i32.const 2))
      (catch_all
        (rethrow 0))))
  (func $handed (param i32)
    (block $out
      (try
        (do
          (try
            (do (call $throws (i32.const 3)))
            (delegate 0))
          (br $out))
        (catch_all)))))
