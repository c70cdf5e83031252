extern fn tick(x: u32) void;
export fn g(a: u32, b: u32) u32 { tick(a); return a - b; }
