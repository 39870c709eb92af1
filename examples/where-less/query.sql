select b from t where 1 < a;
