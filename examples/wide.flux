// Each number is passed on and added up, within one section: flows come one after another. narrow.flux has a smaller one.
Tick () => (int n);
Pass (int n) => (int n);
Add (int n) => (int n);

source Tick => Whole;
Whole = Pass -> Add;

atomic Whole:{counter};
atomic Add:{counter};
