class Concat { public static void main(String[] a) { String s = "x"; System.out.println(s + 1); } }
