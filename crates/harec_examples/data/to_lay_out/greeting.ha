use rt;export fn main()void={rt::puts("a");// greets
};
