(module
  (type (func (param i32 i32) (result i32)))
  (type (func (param i32) (result i32)))
  (func $loop (export "loop") (type 1) (param i32) (result i32)
    (local i32 i32 i32)
    block 
      block 
        local.get 0
        br_if 0
        i32.const 1
        local.set 1
        br 1
      end
      i32.const 0
      local.set 2
      i32.const 1
      local.set 1
      loop 
        local.get 1
        local.get 2
        local.get 1
        i32.const 3
        i32.and
        i32.const 2
        i32.shl
        i32.const 1024
        i32.add
        i32.load
        call_indirect (type 0)
        local.set 1
        local.get 2
        i32.const 1
        i32.add
        local.tee 3
        local.set 2
        local.get 0
        local.get 3
        i32.ne
        br_if 0
      end
    end
    local.get 1)
  (func (type 0) (param i32 i32) (result i32)
    local.get 1
    local.get 0
    i32.add)
  (func (type 0) (param i32 i32) (result i32)
    local.get 1
    local.get 0
    i32.xor)
  (func (type 0) (param i32 i32) (result i32)
    local.get 0
    i32.const 3
    i32.mul
    local.get 1
    i32.add)
  (func (type 0) (param i32 i32) (result i32)
    local.get 0
    local.get 1
    i32.sub)
  (table 5 5 funcref)
  (memory 1)
  (elem (i32.const 1) func 1 2 3 4)
  (data (i32.const 1024) "\01\00\00\00\02\00\00\00\03\00\00\00\04\00\00\00"))
