/** A class with fields: what is paid into one account is not in the other. */
public class Account {
    private final String owner;
    private int balance;

    Account(String owner) {
        this.owner = owner;
    }

    void deposit(int amount) {
        balance += amount;
    }

    boolean withdraw(int amount) {
        if (amount > balance) {
            return false;
        }
        balance -= amount;
        return true;
    }

    void print() {
        System.out.print(owner);
        System.out.print(": ");
        System.out.println(balance);
    }

    public static void main(String[] args) {
        Account first = new Account("Ada");
        Account second = new Account("Grace");
        first.deposit(100);
        second.deposit(20);
        System.out.println(first.withdraw(30) ? "paid" : "refused");
        System.out.println(second.withdraw(30) ? "paid" : "refused");
        first.print();
        second.print();
    }
}
