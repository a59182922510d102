// Two flows that use two cells in opposite order: each holds one of them while its member uses the other.
Tick () => (int n);
Tick_again () => (int n);
Add (int n) => (int n);
Bump (int n) => (int n);

source Tick => Visit;
source Tick_again => Total;

Visit = Add;
Total = Bump;

atomic Add:{counter};
atomic Bump:{visits};
atomic Visit:{visits?};
atomic Total:{counter};
