// A program that is refused: Pass gives an int, and Echo takes an int and a text.
Tick () => (int n);
Pass (int n) => (int n);
Echo (int link, text words) => ();

Answer = Pass -> Echo;

source Tick => Answer;
