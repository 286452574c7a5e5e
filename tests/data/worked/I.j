.interface public abstract I
.super java/lang/Object
.method public abstract m()I
.end method
