.interface public I
.super java/lang/Object

.method public abstract m()I
.end method
