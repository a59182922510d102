Listen () => (int link, text words);
Echo (int link, text words) => ();

source Listen => Echo;
