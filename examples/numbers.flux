Tick () => (int n);
Show (int n) => ();

source Tick => Show;
