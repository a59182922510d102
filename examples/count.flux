// A counter: each flow adds its number to one sum, and shows what it is then.
Tick () => (int n);
Add (int n) => (int sum);
Show (int sum) => ();

source Tick => Count;

Count = Add -> Show;

atomic Add:{counter};
