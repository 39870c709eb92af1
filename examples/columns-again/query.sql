select b, a, b from t ;
