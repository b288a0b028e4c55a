fn f() void = void;
