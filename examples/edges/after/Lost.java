/** The method is gone. */
class Lost {
}
