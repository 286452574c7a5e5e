.interface public I
.super java/lang/Object
