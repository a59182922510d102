// Two sources, and flows within flows, in any order of lines.
source Tick => Twice;
source Listen => Answer;

Twice = Once -> Once -> Show;
Once = Pass;
Answer = Echo;

Tick () => (int n);
Listen () => (int link, text words);
Pass (int n) => (int n);
Show (int n) => ();
Echo (int link, text words) => ();
