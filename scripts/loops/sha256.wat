(module
  (type (func (param i32) (result i32)))
  (func $loop (export "loop") (type 0) (param i32) (result i32)
    (local i32 i32 i32 i32 i32 i32 i32 i32 i32 i32 i32 i32 i32 i32 i32 i32 i32 i32 i32 i32)
    i32.const 0
    i64.const 6620516960021240235
    i64.store offset=1304
    i32.const 0
    i64.const -7276294671082564993
    i64.store offset=1296
    i32.const 0
    i64.const -6534734903820487822
    i64.store offset=1288
    i32.const 0
    i64.const -4942790177982912921
    i64.store offset=1280
    i32.const 1779033703
    local.set 1
    block 
      local.get 0
      i32.eqz
      br_if 0
      i32.const -1150833019
      local.set 2
      i32.const 1013904242
      local.set 3
      i32.const -1521486534
      local.set 4
      i32.const 1359893119
      local.set 5
      i32.const -1694144372
      local.set 6
      i32.const 528734635
      local.set 7
      i32.const 1541459225
      local.set 8
      i32.const 0
      local.set 9
      loop 
        i32.const 1312
        local.set 10
        i32.const 0
        local.set 11
        i32.const 0
        local.set 12
        loop 
          local.get 10
          local.get 11
          local.get 12
          i32.const 7
          i32.and
          i32.const 2
          i32.shl
          i32.const 1280
          i32.add
          i32.load
          i32.add
          i32.store
          local.get 11
          local.get 9
          i32.add
          local.set 11
          local.get 10
          i32.const 4
          i32.add
          local.set 10
          local.get 12
          i32.const 1
          i32.add
          local.tee 12
          i32.const 16
          i32.ne
          br_if 0
        end
        i32.const -192
        local.set 10
        i32.const 0
        i32.load offset=1312
        local.tee 13
        local.set 12
        loop 
          local.get 10
          i32.const 1568
          i32.add
          local.get 10
          i32.const 1508
          i32.add
          i32.load
          local.tee 11
          i32.const 25
          i32.rotl
          local.get 11
          i32.const 14
          i32.rotl
          i32.xor
          local.get 11
          i32.const 3
          i32.shr_u
          i32.xor
          local.get 12
          i32.add
          local.get 10
          i32.const 1540
          i32.add
          i32.load
          i32.add
          local.get 10
          i32.const 1560
          i32.add
          i32.load
          local.tee 12
          i32.const 15
          i32.rotl
          local.get 12
          i32.const 13
          i32.rotl
          i32.xor
          local.get 12
          i32.const 10
          i32.shr_u
          i32.xor
          i32.add
          i32.store
          local.get 11
          local.set 12
          local.get 10
          i32.const 4
          i32.add
          local.tee 10
          br_if 0
        end
        i32.const -252
        local.set 12
        local.get 8
        local.set 14
        local.get 7
        local.set 15
        local.get 6
        local.set 16
        local.get 5
        local.set 10
        local.get 4
        local.set 17
        local.get 3
        local.set 18
        local.get 2
        local.set 19
        local.get 1
        local.set 11
        loop 
          local.get 18
          local.get 19
          i32.xor
          local.get 11
          i32.and
          local.get 18
          local.get 19
          i32.and
          i32.xor
          local.get 11
          i32.const 30
          i32.rotl
          local.get 11
          i32.const 19
          i32.rotl
          i32.xor
          local.get 11
          i32.const 10
          i32.rotl
          i32.xor
          i32.add
          local.get 10
          i32.const 26
          i32.rotl
          local.get 10
          i32.const 21
          i32.rotl
          i32.xor
          local.get 10
          i32.const 7
          i32.rotl
          i32.xor
          local.get 16
          local.get 10
          i32.and
          i32.add
          local.get 14
          i32.add
          local.get 15
          local.get 10
          i32.const -1
          i32.xor
          i32.and
          i32.add
          local.get 12
          i32.const 1276
          i32.add
          i32.load
          i32.add
          local.get 13
          i32.add
          local.tee 13
          i32.add
          local.set 20
          local.get 13
          local.get 17
          i32.add
          local.set 17
          block 
            local.get 12
            br_if 0
            i32.const 0
            local.get 15
            local.get 8
            i32.add
            local.tee 8
            i32.store offset=1308
            i32.const 0
            local.get 16
            local.get 7
            i32.add
            local.tee 7
            i32.store offset=1304
            i32.const 0
            local.get 10
            local.get 6
            i32.add
            local.tee 6
            i32.store offset=1300
            i32.const 0
            local.get 17
            local.get 5
            i32.add
            local.tee 5
            i32.store offset=1296
            i32.const 0
            local.get 18
            local.get 4
            i32.add
            local.tee 4
            i32.store offset=1292
            i32.const 0
            local.get 19
            local.get 3
            i32.add
            local.tee 3
            i32.store offset=1288
            i32.const 0
            local.get 11
            local.get 2
            i32.add
            local.tee 2
            i32.store offset=1284
            i32.const 0
            local.get 20
            local.get 1
            i32.add
            local.tee 1
            i32.store offset=1280
            local.get 9
            i32.const 1
            i32.add
            local.tee 9
            local.get 0
            i32.ne
            br_if 2
            br 3
          end
          local.get 12
          i32.const 1568
          i32.add
          i32.load
          local.set 13
          local.get 12
          i32.const 4
          i32.add
          local.set 12
          local.get 15
          local.set 14
          local.get 16
          local.set 15
          local.get 10
          local.set 16
          local.get 17
          local.set 10
          local.get 18
          local.set 17
          local.get 19
          local.set 18
          local.get 11
          local.set 19
          local.get 20
          local.set 11
          br 0
        end
      end
    end
    local.get 1)
  (memory 1)
  (data (i32.const 1024) "\98/\8aB\91D7q\cf\fb\c0\b5\a5\db\b5\e9[\c2V9\f1\11\f1Y\a4\82?\92\d5^\1c\ab\98\aa\07\d8\01[\83\12\be\851$\c3}\0cUt]\ber\fe\b1\de\80\a7\06\dc\9bt\f1\9b\c1\c1i\9b\e4\86G\be\ef\c6\9d\c1\0f\cc\a1\0c$o,\e9-\aa\84tJ\dc\a9\b0\5c\da\88\f9vRQ>\98m\c61\a8\c8'\03\b0\c7\7fY\bf\f3\0b\e0\c6G\91\a7\d5Qc\ca\06g))\14\85\0a\b7'8!\1b.\fcm,M\13\0d8STs\0ae\bb\0ajv.\c9\c2\81\85,r\92\a1\e8\bf\a2Kf\1a\a8p\8bK\c2\a3Ql\c7\19\e8\92\d1$\06\99\d6\855\0e\f4p\a0j\10\16\c1\a4\19\08l7\1eLwH'\b5\bc\b04\b3\0c\1c9J\aa\d8NO\ca\9c[\f3o.h\ee\82\8ftoc\a5x\14x\c8\84\08\02\c7\8c\fa\ff\be\90\eblP\a4\f7\a3\f9\be\f2xq\c6"))
