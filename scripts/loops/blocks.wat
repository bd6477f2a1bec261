(module
  (func $loop (export "loop") (param i32) (result i32) (local i32 i32)
    (loop
      (block
        (block
          (block
            (br_table 0 1 2 (i32.and (local.get 1) (i32.const 3))))
          (local.set 2 (i32.add (local.get 2) (i32.const 1))))
        (local.set 2 (i32.add (local.get 2) (i32.const 3))))
      (if (i32.and (local.get 1) (i32.const 1))
        (then (local.set 2 (i32.add (local.get 2) (i32.const 5))))
        (else (local.set 2 (i32.xor (local.get 2) (i32.const 7)))))
      (local.set 1 (i32.add (local.get 1) (i32.const 1)))
      (br_if 0 (i32.lt_u (local.get 1) (local.get 0))))
    (local.get 2)))
