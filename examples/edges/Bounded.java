/** It has what stands above it. */
class Bounded extends Constants implements Bounds {
}
