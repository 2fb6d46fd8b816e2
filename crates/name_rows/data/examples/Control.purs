-- Functors up to monads, with the operators for them.
module Control where

infixl 4 map as <$>
infixl 4 mapFlipped as <#>
infixl 4 apply as <*>
infixl 1 bind as >>=
infixr 1 composeKleisli as >=>

class Functor f where
  map :: forall a b. (a -> b) -> f a -> f b

class Functor f <= Apply f where
  apply :: forall a b. f (a -> b) -> f a -> f b

class Apply f <= Applicative f where
  pure :: forall a. a -> f a

class Apply m <= Bind m where
  bind :: forall a b. m a -> (a -> m b) -> m b
  discard :: forall a b. m a -> (a -> m b) -> m b

class (Applicative m, Bind m) <= Monad m

mapFlipped :: forall f a b. Functor f => f a -> (a -> b) -> f b
mapFlipped fa f = f <$> fa

composeKleisli :: forall m a b c. Monad m => (a -> m b) -> (b -> m c) -> a -> m c
composeKleisli f g a = f a >>= g

lift2 :: forall f a b c. Apply f => (a -> b -> c) -> f a -> f b -> f c
lift2 f a b = f <$> a <*> b

join :: forall m a. Bind m => m (m a) -> m a
join m = m >>= \x -> x

when :: forall m unit. Applicative m => Boolean -> unit -> m unit -> m unit
when condition unit action = if condition then action else pure unit

ap :: forall m a b. Monad m => m (a -> b) -> m a -> m b
ap mf ma = do
  f <- mf
  a <- ma
  pure (f a)

pair :: forall f a b. Applicative f => f a -> f b -> f { first :: a, second :: b }
pair fa fb = ado
  first <- fa
  second <- fb
  in { first, second }

void :: forall f a r. Functor f => r -> f a -> f r
void r = map \_ -> r
