fn f_0(a: u32) u32 = a * 613;
