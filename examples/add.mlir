module {
  func.func @add(%A: memref<100xi32>, %B: memref<100xi32>, %C: memref<100xi32>) {
    affine.for %i = 0 to 100 {
      %a = affine.load %A[%i] : memref<100xi32>
      %b = affine.load %B[%i] : memref<100xi32>
      %s = arith.addi %a, %b : i32
      affine.store %s, %C[%i] : memref<100xi32>
    }
    return
  }
}
