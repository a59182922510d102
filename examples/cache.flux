// A server of documents that keeps what it has read: the first flow that asks for a name reads it, the later ones find it.
Listen () => (int link, text line);
ReadName (int link, text line) => (text name);
CheckCache (text name) => (text name, text body, bool close);
ReadInFromDisk (text name, text body, bool close) => (text name, text body, bool close);
StoreInCache (text name, text body, bool close) => (text name, text body, bool close);
Write (text name, text body, bool close) => (text name);
Complete (text name) => ();
FourOhFour (text name, text body, bool close) => ();

typedef hit TestInCache;

source Listen => Image;

Image = ReadName -> CheckCache -> Handler -> Write -> Complete;

Handler:[_, _, hit] = ;
Handler:[_, _, _] = ReadInFromDisk -> StoreInCache;

handle error ReadInFromDisk => FourOhFour;

atomic CheckCache:{cache};
atomic StoreInCache:{cache};
atomic Complete:{cache};
