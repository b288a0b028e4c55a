let y: u8 = 300;
