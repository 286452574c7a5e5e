/** Two customers pay into one account. */
public class Bank {
    static final Account ACCOUNT = new Account(100);

    public static void main(String[] args) {
        new Customer(1).start();
        new Customer(20).start();
    }
}

class Account {
    private int balance;

    Account(int balance) {
        this.balance = balance;
    }

    synchronized int pay(int amount) {
        int sum = balance + amount;
        balance = sum;
        return sum;
    }
}

class Customer extends Thread {
    private final int amount;

    Customer(int amount) {
        this.amount = amount;
    }

    public void run() {
        System.out.println(Bank.ACCOUNT.pay(amount));
    }
}
