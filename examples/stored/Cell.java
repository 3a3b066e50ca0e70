/** A cell of a list. */
public class Cell {
    final int value;
    final Cell next;

    Cell(int value, Cell next) {
        this.value = value;
        this.next = next;
    }
}
