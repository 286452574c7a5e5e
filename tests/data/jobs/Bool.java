class Bool { public static void main(String[] a) { System.out.println(true); } }
