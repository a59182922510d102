// A server without memory: cases by predicates, and handlers by code.
Listen () => (int link, text request);
Command (int link, text request) => (text word, int amount);
Amount (text word, int amount) => (int amount);
Fail (int amount) => (int amount);
Show (int amount) => ();
Show_code (int amount) => ();
Refuse (int link, text request) => ();

source Listen => Serve;
session Listen => ByConn;

Serve = Command -> Answer;

typedef add IsAdd;
typedef negative IsNegative;
Answer:[add, negative] = Number -> Show;
Answer:[add, _] = Number -> Try -> Show;   // what is asked for with `get` has no case

Number = Amount;
Try = Fail;

handle error Fail:(1, 2) => Show_code;
handle error Command => Refuse;
