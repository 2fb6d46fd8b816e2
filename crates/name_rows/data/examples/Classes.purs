-- Classes with several parameters, dependencies, chains of instances and kinds that are written.
module Classes where

import Basics (class Eq, class Ord, class Semigroup, class Show, append, show, (<>))
import Control (class Functor, map)

foreign import data Buffer :: Type -> Type
foreign import readAt :: forall a. Buffer a -> Int -> a
foreign import lengthOf :: forall a. Buffer a -> Int

data Proxy :: (Type -> Type) -> Type
data Proxy f = Proxy

newtype Compose :: (Type -> Type) -> (Type -> Type) -> Type -> Type
newtype Compose f g a = Compose (f (g a))

class Container :: Type -> Type -> Constraint
class Container c e | c -> e where
  first :: c -> e
  count :: c -> Int

class (Functor f, Functor g) <= Natural f g where
  transform :: forall a. f a -> g a

class Describe a where
  describe :: a -> String

instance describeInt :: Describe Int where
  describe _ = "a number"
else instance describeString :: Describe String where
  describe _ = "a text"
else instance describeArray :: Describe a => Describe (Array a) where
  describe _ = "some"
else instance describeOther :: Describe a where
  describe _ = "something"

instance containerBuffer :: Container (Buffer e) e where
  first b = readAt b 0
  count = lengthOf

instance functorCompose :: (Functor f, Functor g) => Functor (Compose f g) where
  map f (Compose fga) = Compose (map (map f) fga)

type NaturalTransformation f g = forall a. f a -> g a

infixr 4 type NaturalTransformation as ~>

headOf :: Array ~> Buffer -> Proxy Array -> Int
headOf _ _ = 0

newtype Min a = Min a
newtype Max a = Max a

instance semigroupFunction :: Semigroup b => Semigroup (a -> b) where
  append f g = \x -> f x <> g x

partial :: Partial => Int -> String
partial 0 = "zero"

choose :: forall a. Show a => Eq a => Boolean -> a -> a -> String
choose true a _ = show a
choose false _ b = show b

symbols :: Proxy Array -> String
symbols Proxy = "array"
