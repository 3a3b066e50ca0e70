/** Fields, calls, a class of exceptions, and one that nothing catches. */
public class Account {
    private long balance;

    static class Overdrawn extends RuntimeException {
        final long missing;

        Overdrawn(long missing) {
            super("overdrawn");
            this.missing = missing;
        }
    }

    void pay(long amount) {
        balance += amount;
    }

    void take(long amount) {
        if (amount > balance) {
            throw new Overdrawn(amount - balance);
        }
        balance -= amount;
    }

    public static void main(String[] args) {
        Account account = new Account();
        account.pay(100);
        try {
            account.take(130);
        } catch (Overdrawn e) {
            System.out.print("missing ");
            System.out.println(e.missing);
        }
        account.take(40);
        System.out.println(account.balance);
        account.take(61);
    }
}
