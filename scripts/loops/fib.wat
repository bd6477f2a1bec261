(module
  (func $loop (export "loop") (param i32) (result i32)
    (if (result i32) (i32.lt_u (local.get 0) (i32.const 2))
      (then (local.get 0))
      (else
        (i32.add
          (call $loop (i32.sub (local.get 0) (i32.const 1)))
          (call $loop (i32.sub (local.get 0) (i32.const 2))))))))
