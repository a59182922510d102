// The flows of wide.flux, with a section round the addition alone: passing on is done side by side.
Tick () => (int n);
Pass (int n) => (int n);
Add (int n) => (int n);

source Tick => Whole;
Whole = Pass -> Add;

atomic Add:{counter};
