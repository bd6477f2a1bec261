(module
  (memory 1)
  (func $loop (export "loop") (param i32) (result i32) (local i32 i32)
    (loop
      (local.set 2 (i32.and (i32.mul (local.get 1) (i32.const 68)) (i32.const 65532)))
      (i32.store (local.get 2) (i32.add (i32.load (local.get 2)) (local.get 1)))
      (local.set 1 (i32.add (local.get 1) (i32.const 1)))
      (br_if 0 (i32.lt_u (local.get 1) (local.get 0))))
    (i32.load (i32.const 68))))
