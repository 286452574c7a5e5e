.interface public K
.super java/lang/Object

.field public static final x I = 2
