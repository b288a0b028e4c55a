export fn f() void = void;
