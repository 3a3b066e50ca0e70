/** It has members of its own later. */
class Middle extends Top {
}
