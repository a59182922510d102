// Each number has a session of its own: only flows of one number keep each other out of `Bump`.
Tick () => (int n);
Bump (int n) => (int n);

source Tick => Bump;
session Tick => ByNumber;

atomic Bump:{visits(session)};
