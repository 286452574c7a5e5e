/** Scans a literal by charAt and length: words, vowels, a hash, and a search. */
class Words {
    static int words(String text) {
        int words = 0;
        boolean inside = false;
        for (int i = 0; i < text.length(); i++) {
            boolean letter = text.charAt(i) >= 'a' && text.charAt(i) <= 'z';
            if (letter && !inside) {
                words++;
            }
            inside = letter;
        }
        return words;
    }

    static int vowels(String text) {
        int vowels = 0;
        for (int i = 0; i < text.length(); i++) {
            switch (text.charAt(i)) {
                case 'a': case 'e': case 'i': case 'o': case 'u': vowels++; break;
                default: break;
            }
        }
        return vowels;
    }

    static int hash(String text) {
        int hash = 0;
        for (int i = 0; i < text.length(); i++) {
            hash = 31 * hash + text.charAt(i);
        }
        return hash;
    }

    static int found(String text, String part) {
        for (int i = 0; i + part.length() <= text.length(); i++) {
            int j = 0;
            while (j < part.length() && text.charAt(i + j) == part.charAt(j)) {
                j++;
            }
            if (j == part.length()) {
                return i;
            }
        }
        return -1;
    }

    public static void main(String[] arguments) {
        String text = "it was the best of times, it was the worst of times, it was the age of wisdom, it was the age of foolishness";
        int sum = 0;
        for (int round = Size.of(); round > 0; round--) {
            sum = sum * 3 + words(text) + vowels(text) + found(text, "the age of f") + hash(text);
        }
        System.out.println(words(text));
        System.out.println(vowels(text));
        System.out.println(found(text, "the age of f"));
        System.out.println(sum);
    }
}
