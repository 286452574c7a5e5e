; An interface with two methods and a constant.
.interface public abstract Shape
.super java/lang/Object

.field public static final UNIT I = 1

.method public abstract area()I
.end method

.method public abstract scaled(I)LShape;
.end method
