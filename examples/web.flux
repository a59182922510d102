// A server that counts: it answers each line of a link, and has every form of the language.
Listen () => (int link, text request);
Command (int link, text request) => (text word, int amount);
Amount (text word, int amount) => (int amount);
Bump (int amount) => (int amount);
Add (int amount) => (int sum);
Read (int amount) => (int sum);
Show (int sum) => ();
Refuse (int link, text request) => ();
Refuse_unknown (int link, text request) => ();

source Listen => Serve;
session Listen => ByConn;

Serve = Command -> Answer;

typedef add IsAdd;
Answer:[add, _] = Amount -> Total -> Show;
Answer:[_, _] = Amount -> Read -> Show;   /* it asks for the sum */

Total = Bump -> Add;

handle error Command => Refuse;
handle error Command:(2) => Refuse_unknown;

atomic Read:{counter?};
atomic Add:{counter};
atomic Bump:{ visits (session) ! };
atomic Total:{visits?(session)};   /* each link has its own visits */
