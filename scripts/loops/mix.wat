(module
  (func $loop (export "loop") (param i32) (result i64) (local i32 i64)
    (local.set 2 (i64.const 88172645463325252))
    (loop
      (local.set 2 (i64.xor (local.get 2) (i64.shl (local.get 2) (i64.const 13))))
      (local.set 2 (i64.xor (local.get 2) (i64.shr_u (local.get 2) (i64.const 7))))
      (local.set 2 (i64.mul (local.get 2) (i64.const 2685821657736338717)))
      (local.set 1 (i32.add (local.get 1) (i32.const 1)))
      (br_if 0 (i32.lt_u (local.get 1) (local.get 0))))
    (local.get 2)))
