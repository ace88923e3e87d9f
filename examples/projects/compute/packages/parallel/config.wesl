// What a program that uses the package may set: the size of a workgroup, by a number that no mangler changes.
@if(HALF) enable f16;

@id(0) override block: u32 = 128u;
override log_block = firstTrailingBit(block);

@if(HALF) alias Value = f16;
@else alias Value = f32;
